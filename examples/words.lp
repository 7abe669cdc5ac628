\ A corpus of 12,000,000 running words from which a board draws its texts. Talk is left out, or has 1,500,000 words at least.
\ budget 100
Minimize
 obj: 0 science
Subject To
 words: science + fiction + news + talk = 12000000
 written: science + fiction + news - 5 talk <= 0
 press: news - science - fiction <= 0
 balance: fiction - 2 science <= 0
Bounds
 1200000 <= science <= 6000000
 0 <= fiction <= 3500000
 2000000 <= news <= 8000000
 1500000 <= talk <= 3000000
General
 science fiction news talk
Semi-Continuous
 talk
End
