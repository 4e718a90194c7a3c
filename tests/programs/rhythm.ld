VAR
  Start AT %IX0 : BOOL;
  Y AT %QX0 : BOOL;
  Stroke : TP := (PT := T#50ms);
  Delay : TON := (PT := T#30ms);
END_VAR

|   Start      Stroke
|----| |------|IN TP  Q|

|  Stroke.Q     Delay
|----| |------|IN TON Q|

|  Stroke.Q    Delay.Q        Y
|----| |---------| |---------( )----
