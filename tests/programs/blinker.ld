VAR
  Run AT %IX0 : BOOL;
  Lamp AT %QX0 : BOOL;
  Never AT %QX1 : BOOL;
  Dark : TON := (PT := T#300ms);
  Light : TON := (PT := T#200ms);
END_VAR

|    Run      Light.Q       Dark
|----| |---------|/|------|IN TON Q|

|  Dark.Q       Light
|----| |------|IN TON Q|

|  Dark.Q       Lamp
|----| |---------( )----

|   Lamp         Run         Never
|----| |---------|/|---------( )----
