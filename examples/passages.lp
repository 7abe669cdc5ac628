\ A listening paper of 24 items and 46 points. Items on dialogues (facts, attitudes) and on talks (gist, details) are printed five to a passage;
\ dictation is printed by itself. How many dialogues and talks there are is left open: they are free, and stand in one row each.
\ budget 100
Minimize
 obj: 0 facts
Subject To
 dialogue_fives: facts + attitudes - 5 dialogues = 0
 talk_fives: gist + details - 5 talks = 0
 items: facts + attitudes + gist + details + dictation = 24
 points: facts + 2 attitudes + 2 gist + 2 details + 3 dictation = 46
 minutes: 2 facts + 3 attitudes + 3 gist + 2 details + 3 dictation <= 70
 detail_share: details - 2 gist <= 0
Bounds
 2 <= facts <= 10
 1 <= attitudes <= 7
 1 <= gist <= 5
 2 <= details <= 7
 4 <= dictation <= 8
 dialogues free
 talks free
General
 facts attitudes gist details dictation dialogues talks
End
