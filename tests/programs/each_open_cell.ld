VAR
  Plain AT %IX0 : BOOL;
  Negated AT %IX1 : BOOL;
  Rising AT %IX2 : BOOL;
  Falling AT %IX3 : BOOL;
  Lamp AT %QX0 : BOOL;
  Lag : TON := (PT := T#1s);
  Latch : SR;
END_VAR

|   Plain        Lag
|----| |------|IN TON Q|

|   Plain       Latch        Lamp
|----| |------|S1 SR Q1|+----( )----
|  Falling              |
|----| |------|R       ||
|  Falling      Plain   |
|----|N|---------| |----+
|  Negated      Plain   |
|----|/|---------| |----+
|   Rising     Latch.Q1 |
|----|P|---------|/|----+
|   Lag.Q       Plain   |
|----| |---------| |----+

|   Plain        Lamp
|----| |---------(S)----
