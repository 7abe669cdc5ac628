\ What a reading paper must contain: how many items of each of nine kinds, on how many passages.
\ The order in the section General decides which solution comes first: as few of the first kind as possible, then of the second, and so on.
\ budget 1000
Minimize
 obj: 0 vocabulary
Subject To
\ 40 items for 100 points, in 80 to 90 minutes (counted in half minutes).
 items: vocabulary + grammar + spelling + gist + detail + inference + tables + graphs + essays = 40
 points: vocabulary + grammar + spelling + 3 gist + 2 detail + 4 inference + 2 tables + 4 graphs + 20 essays = 100
 minutes_least: 2 vocabulary + 2 grammar + spelling + 4 gist + 3 detail + 6 inference + 4 tables + 6 graphs + 40 essays >= 160
 minutes_most: 2 vocabulary + 2 grammar + spelling + 4 gist + 3 detail + 6 inference + 4 tables + 6 graphs + 40 essays <= 180
\ Language is 30 to 40 percent of the items, reading at least as much as language, figures at most a fifth.
 language_least: vocabulary + grammar + spelling >= 12
 language_most: vocabulary + grammar + spelling <= 16
 reading: gist + detail + inference - vocabulary - grammar - spelling >= 0
 figures: tables + graphs <= 8
\ A passage carries 4 to 6 items, one of them on its gist.
 carries_least: gist + detail + inference - 4 passages >= 0
 carries_most: gist + detail + inference - 6 passages <= 0
 gist_each: gist - passages = 0
\ No more than twice as much detail as inference; as many tables as graphs, or one more.
 detail_share: detail - 2 inference <= 0
 balance_least: tables - graphs >= 0
 balance_most: tables - graphs <= 1
Bounds
 vocabulary <= 10
 grammar <= 8
 spelling <= 4
 gist <= 5
 detail <= 12
 inference <= 8
 tables <= 5
 graphs <= 5
 1 <= essays <= 2
 2 <= passages <= 5
General
 vocabulary grammar spelling gist detail inference tables graphs essays passages
End
