VAR
  Start AT %IX0 : BOOL;
  Stop AT %IX1 : BOOL;
  Motor AT %QX0 : BOOL := TRUE;
  Delay : TON := (PT := T#5s);
END_VAR

|   Start       Stop        Motor
|----| |----+----|/|---------( )----
|   Motor   |
|----| |----+
