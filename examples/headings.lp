\ A paper of 20 items and 47 points. Each part is left out, or has enough items to carry a heading of its own: its lower limit counts only if it is used.
\ budget 100
Minimize
 obj: 0 vocabulary
Subject To
 items: vocabulary + grammar + spelling + gist + figures = 20
 points: vocabulary + 2 grammar + 2 spelling + 3 gist + 4 figures = 47
 minutes: 2 vocabulary + 3 grammar + 2 spelling + 4 gist + 5 figures <= 63
 language: vocabulary + grammar + spelling - gist - figures >= 4
Bounds
 4 <= vocabulary <= 12
 5 <= grammar <= 10
 4 <= spelling <= 8
 3 <= gist <= 9
 3 <= figures <= 6
General
 vocabulary grammar spelling gist figures
Semi-Continuous
 vocabulary grammar spelling gist figures
End
