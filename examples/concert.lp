\ An evening of concerts: hours of music, and hours of setting up between the bands.
Minimize
Subject To
 hall: music + setup <= 8
 bands: music >= 6
 change: setup - 0.5 music >= 0
 crew: setup <= 2
End
