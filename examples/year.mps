* A bakery's year: bread and cake for each month, by what is wanted, the oven's room and the hours.
* The oven has no room for what is wanted in December.
NAME YEAR
ROWS
 N cost
 G want_bread_jan
 G want_cake_jan
 L oven_jan
 L hours_jan
 G want_bread_feb
 G want_cake_feb
 L oven_feb
 L hours_feb
 G want_bread_mar
 G want_cake_mar
 L oven_mar
 L hours_mar
 G want_bread_apr
 G want_cake_apr
 L oven_apr
 L hours_apr
 G want_bread_may
 G want_cake_may
 L oven_may
 L hours_may
 G want_bread_jun
 G want_cake_jun
 L oven_jun
 L hours_jun
 G want_bread_jul
 G want_cake_jul
 L oven_jul
 L hours_jul
 G want_bread_aug
 G want_cake_aug
 L oven_aug
 L hours_aug
 G want_bread_sep
 G want_cake_sep
 L oven_sep
 L hours_sep
 G want_bread_oct
 G want_cake_oct
 L oven_oct
 L hours_oct
 G want_bread_nov
 G want_cake_nov
 L oven_nov
 L hours_nov
 G want_bread_dec
 G want_cake_dec
 L oven_dec
 L hours_dec
 L flour
 L sugar
COLUMNS
 bread_jan cost 2 want_bread_jan 1
 bread_jan oven_jan 1 hours_jan 0.5
 bread_jan flour 1
 cake_jan cost 3 want_cake_jan 1
 cake_jan oven_jan 2 hours_jan 0.75
 cake_jan flour 0.5 sugar 0.25
 bread_feb cost 2 want_bread_feb 1
 bread_feb oven_feb 1 hours_feb 0.5
 bread_feb flour 1
 cake_feb cost 3 want_cake_feb 1
 cake_feb oven_feb 2 hours_feb 0.75
 cake_feb flour 0.5 sugar 0.25
 bread_mar cost 2 want_bread_mar 1
 bread_mar oven_mar 1 hours_mar 0.5
 bread_mar flour 1
 cake_mar cost 3 want_cake_mar 1
 cake_mar oven_mar 2 hours_mar 0.75
 cake_mar flour 0.5 sugar 0.25
 bread_apr cost 2 want_bread_apr 1
 bread_apr oven_apr 1 hours_apr 0.5
 bread_apr flour 1
 cake_apr cost 3 want_cake_apr 1
 cake_apr oven_apr 2 hours_apr 0.75
 cake_apr flour 0.5 sugar 0.25
 bread_may cost 2 want_bread_may 1
 bread_may oven_may 1 hours_may 0.5
 bread_may flour 1
 cake_may cost 3 want_cake_may 1
 cake_may oven_may 2 hours_may 0.75
 cake_may flour 0.5 sugar 0.25
 bread_jun cost 2 want_bread_jun 1
 bread_jun oven_jun 1 hours_jun 0.5
 bread_jun flour 1
 cake_jun cost 3 want_cake_jun 1
 cake_jun oven_jun 2 hours_jun 0.75
 cake_jun flour 0.5 sugar 0.25
 bread_jul cost 2 want_bread_jul 1
 bread_jul oven_jul 1 hours_jul 0.5
 bread_jul flour 1
 cake_jul cost 3 want_cake_jul 1
 cake_jul oven_jul 2 hours_jul 0.75
 cake_jul flour 0.5 sugar 0.25
 bread_aug cost 2 want_bread_aug 1
 bread_aug oven_aug 1 hours_aug 0.5
 bread_aug flour 1
 cake_aug cost 3 want_cake_aug 1
 cake_aug oven_aug 2 hours_aug 0.75
 cake_aug flour 0.5 sugar 0.25
 bread_sep cost 2 want_bread_sep 1
 bread_sep oven_sep 1 hours_sep 0.5
 bread_sep flour 1
 cake_sep cost 3 want_cake_sep 1
 cake_sep oven_sep 2 hours_sep 0.75
 cake_sep flour 0.5 sugar 0.25
 bread_oct cost 2 want_bread_oct 1
 bread_oct oven_oct 1 hours_oct 0.5
 bread_oct flour 1
 cake_oct cost 3 want_cake_oct 1
 cake_oct oven_oct 2 hours_oct 0.75
 cake_oct flour 0.5 sugar 0.25
 bread_nov cost 2 want_bread_nov 1
 bread_nov oven_nov 1 hours_nov 0.5
 bread_nov flour 1
 cake_nov cost 3 want_cake_nov 1
 cake_nov oven_nov 2 hours_nov 0.75
 cake_nov flour 0.5 sugar 0.25
 bread_dec cost 2 want_bread_dec 1
 bread_dec oven_dec 1 hours_dec 0.5
 bread_dec flour 1
 cake_dec cost 3 want_cake_dec 1
 cake_dec oven_dec 2 hours_dec 0.75
 cake_dec flour 0.5 sugar 0.25
RHS
 rhs want_bread_jan 300
 rhs want_cake_jan 80
 rhs oven_jan 640
 rhs hours_jan 380
 rhs want_bread_feb 290
 rhs want_cake_feb 90
 rhs oven_feb 640
 rhs hours_feb 380
 rhs want_bread_mar 310
 rhs want_cake_mar 85
 rhs oven_mar 640
 rhs hours_mar 380
 rhs want_bread_apr 305
 rhs want_cake_apr 100
 rhs oven_apr 640
 rhs hours_apr 380
 rhs want_bread_may 315
 rhs want_cake_may 95
 rhs oven_may 640
 rhs hours_may 380
 rhs want_bread_jun 320
 rhs want_cake_jun 90
 rhs oven_jun 640
 rhs hours_jun 380
 rhs want_bread_jul 330
 rhs want_cake_jul 85
 rhs oven_jul 640
 rhs hours_jul 380
 rhs want_bread_aug 325
 rhs want_cake_aug 80
 rhs oven_aug 640
 rhs hours_aug 380
 rhs want_bread_sep 310
 rhs want_cake_sep 95
 rhs oven_sep 640
 rhs hours_sep 380
 rhs want_bread_oct 300
 rhs want_cake_oct 100
 rhs oven_oct 640
 rhs hours_oct 380
 rhs want_bread_nov 310
 rhs want_cake_nov 120
 rhs oven_nov 640
 rhs hours_nov 380
 rhs want_bread_dec 400
 rhs want_cake_dec 200
 rhs oven_dec 750
 rhs hours_dec 380
 rhs flour 4600
 rhs sugar 320
ENDATA
