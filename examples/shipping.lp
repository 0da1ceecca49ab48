\ A week's shipping plan: tonnes from three plants to four stores at least cost.
\ Lyon ships in trucks of 8 tonnes; Metz is opened for a fixed sum, or not at all.
Minimize
 cost: 12.5 lyon_paris + 9.75 lyon_nice + 17 lyon_lille + 21.2 lyon_brest
  + 10.4 metz_paris + 19 metz_nice + 8.25 metz_lille + 24 metz_brest
  + 11 nantes_paris + 20.5 nantes_nice + 15.6 nantes_lille + 6.5 nantes_brest
  + 35 trucks_lyon + 480 open_metz
Subject To
\ supplies
 lyon: lyon_paris + lyon_nice + lyon_lille + lyon_brest <= 120
 metz: metz_paris + metz_nice + metz_lille + metz_brest - 90 open_metz <= 0
 nantes: nantes_paris + nantes_nice + nantes_lille + nantes_brest <= 75.5
 trucks: lyon_paris + lyon_nice + lyon_lille + lyon_brest - 8 trucks_lyon <= 0
\ demands
 paris: lyon_paris + metz_paris + nantes_paris >= 70.5
 nice: lyon_nice + metz_nice + nantes_nice >= 42.25
 lille: lyon_lille + metz_lille + nantes_lille >= 60
 brest: lyon_brest + metz_brest + nantes_brest >= 28.75
Bounds
 metz_brest <= 10
 5 <= nantes_brest <= 30
 trucks_lyon <= 14
Generals
 trucks_lyon
Binaries
 open_metz
End
