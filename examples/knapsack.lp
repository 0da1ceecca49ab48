\ Which parcels go on the van: at most 20 kilos, 12 hundredths of a cubic metre, and not both fragile ones.
Maximize
 worth: 16 lamp + 22 chair + 12 clock + 8 books + 11 mirror
Subject To
 kilos: 5 lamp + 9 chair + 4 clock + 7 books + 6 mirror <= 20
 room: 3 lamp + 6 chair + 2 clock + 2.5 books + 4 mirror <= 12
 fragile: lamp + mirror <= 1
Binaries
 lamp chair clock books mirror
End
