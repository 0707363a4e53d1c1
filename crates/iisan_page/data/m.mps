ROWS
 G a<b&"c"
 L <script>alert('1')</script>
COLUMNS
 x>y a<b&"c" 2
 x>y <script>alert('1')</script> 1
RHS
 rhs a<b&"c" 10
 rhs <script>alert('1')</script> 4
ENDATA
