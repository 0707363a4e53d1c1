\ A bakery's year: bread and cake for each month, by what is wanted, the oven's room and the hours.
\ The oven has no room for what is wanted in December.
Minimize
 cost: 2 bread_jan + 3 cake_jan + 2 bread_feb + 3 cake_feb
   + 2 bread_mar + 3 cake_mar + 2 bread_apr + 3 cake_apr
   + 2 bread_may + 3 cake_may + 2 bread_jun + 3 cake_jun
   + 2 bread_jul + 3 cake_jul + 2 bread_aug + 3 cake_aug
   + 2 bread_sep + 3 cake_sep + 2 bread_oct + 3 cake_oct
   + 2 bread_nov + 3 cake_nov + 2 bread_dec + 3 cake_dec
Subject To
 want_bread_jan: bread_jan >= 300
 want_cake_jan: cake_jan >= 80
 oven_jan: bread_jan + 2 cake_jan <= 640
 hours_jan: 0.5 bread_jan + 0.75 cake_jan <= 380
 want_bread_feb: bread_feb >= 290
 want_cake_feb: cake_feb >= 90
 oven_feb: bread_feb + 2 cake_feb <= 640
 hours_feb: 0.5 bread_feb + 0.75 cake_feb <= 380
 want_bread_mar: bread_mar >= 310
 want_cake_mar: cake_mar >= 85
 oven_mar: bread_mar + 2 cake_mar <= 640
 hours_mar: 0.5 bread_mar + 0.75 cake_mar <= 380
 want_bread_apr: bread_apr >= 305
 want_cake_apr: cake_apr >= 100
 oven_apr: bread_apr + 2 cake_apr <= 640
 hours_apr: 0.5 bread_apr + 0.75 cake_apr <= 380
 want_bread_may: bread_may >= 315
 want_cake_may: cake_may >= 95
 oven_may: bread_may + 2 cake_may <= 640
 hours_may: 0.5 bread_may + 0.75 cake_may <= 380
 want_bread_jun: bread_jun >= 320
 want_cake_jun: cake_jun >= 90
 oven_jun: bread_jun + 2 cake_jun <= 640
 hours_jun: 0.5 bread_jun + 0.75 cake_jun <= 380
 want_bread_jul: bread_jul >= 330
 want_cake_jul: cake_jul >= 85
 oven_jul: bread_jul + 2 cake_jul <= 640
 hours_jul: 0.5 bread_jul + 0.75 cake_jul <= 380
 want_bread_aug: bread_aug >= 325
 want_cake_aug: cake_aug >= 80
 oven_aug: bread_aug + 2 cake_aug <= 640
 hours_aug: 0.5 bread_aug + 0.75 cake_aug <= 380
 want_bread_sep: bread_sep >= 310
 want_cake_sep: cake_sep >= 95
 oven_sep: bread_sep + 2 cake_sep <= 640
 hours_sep: 0.5 bread_sep + 0.75 cake_sep <= 380
 want_bread_oct: bread_oct >= 300
 want_cake_oct: cake_oct >= 100
 oven_oct: bread_oct + 2 cake_oct <= 640
 hours_oct: 0.5 bread_oct + 0.75 cake_oct <= 380
 want_bread_nov: bread_nov >= 310
 want_cake_nov: cake_nov >= 120
 oven_nov: bread_nov + 2 cake_nov <= 640
 hours_nov: 0.5 bread_nov + 0.75 cake_nov <= 380
 want_bread_dec: bread_dec >= 400
 want_cake_dec: cake_dec >= 200
 oven_dec: bread_dec + 2 cake_dec <= 750
 hours_dec: 0.5 bread_dec + 0.75 cake_dec <= 380
 flour: bread_jan + 0.5 cake_jan + bread_feb + 0.5 cake_feb
   + bread_mar + 0.5 cake_mar + bread_apr + 0.5 cake_apr
   + bread_may + 0.5 cake_may + bread_jun + 0.5 cake_jun
   + bread_jul + 0.5 cake_jul + bread_aug + 0.5 cake_aug
   + bread_sep + 0.5 cake_sep + bread_oct + 0.5 cake_oct
   + bread_nov + 0.5 cake_nov + bread_dec + 0.5 cake_dec <= 4600
 sugar: 0.25 cake_jan + 0.25 cake_feb + 0.25 cake_mar + 0.25 cake_apr
   + 0.25 cake_may + 0.25 cake_jun + 0.25 cake_jul + 0.25 cake_aug
   + 0.25 cake_sep + 0.25 cake_oct + 0.25 cake_nov + 0.25 cake_dec <= 320
End
