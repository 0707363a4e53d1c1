\ A house: each task begins when those before it have ended, and all is to be ready after 60 days.
Minimize
 days: ready
Subject To
 permit_after_survey: permit - survey >= 4
 dig_after_permit: dig - permit >= 21
 pour_after_dig: pour - dig >= 6
 deliver_after_order: deliver - order >= 2
 frame_after_deliver: frame - deliver >= 30
 frame_after_pour: frame - pour >= 5
 roof_after_frame: roof - frame >= 12
 wire_after_frame: wire - frame >= 12
 paint_after_roof: paint - roof >= 8
 paint_after_wire: paint - wire >= 7
 end_survey: ready - survey >= 4
 end_permit: ready - permit >= 21
 end_order: ready - order >= 2
 end_deliver: ready - deliver >= 30
 end_dig: ready - dig >= 6
 end_pour: ready - pour >= 5
 end_frame: ready - frame >= 12
 end_roof: ready - roof >= 8
 end_wire: ready - wire >= 7
 end_paint: ready - paint >= 6
Bounds
 ready <= 60
End
