\ Short items give 2 points and take 3 minutes, medium ones 6 and 6, long ones 10 and 9.
\ Is there a paper of 50 points in 50 minutes, with 8 items or more and two medium ones for each long one? There is none.
\ budget 100
Minimize
 obj: 0 short
Subject To
 points: 2 short + 6 medium + 10 long = 50
 minutes: 3 short + 6 medium + 9 long <= 50
 mixture: medium - 2 long >= 0
 items: short + medium + long >= 8
Bounds
 short <= 10
 medium <= 8
 long <= 5
General
 short medium long
End
