VAR
  Level AT %IX0 : BOOL;    (* float switch, ON when there is water to pump *)
  FaultA AT %IX1 : BOOL;   (* motor protection of pump A has tripped *)
  FaultB AT %IX2 : BOOL;   (* motor protection of pump B has tripped *)
  PumpA AT %QX0 : BOOL;
  PumpB AT %QX1 : BOOL;
  Alarm AT %QX2 : BOOL;    (* water, and no pump runs *)
  Ended : BOOL;            (* a run has ended in this scan *)
  TurnB : BOOL;            (* the next run is that of pump B *)
  Both : BOOL;             (* detects both pumps *)
END_VAR

|   Level       Ended
|----|N|---------( )----

(* After each run it is the other pump's turn *)
|   Ended       TurnB       TurnB
|----| |---------|/|----+----( )----
|   Ended       TurnB   |
|----|/|---------| |----+

(* A pump runs when it is its turn *)
|   Level      FaultA       TurnB       PumpA
|----| |---------|/|---------|/|---------( )----

|   Level      FaultB       TurnB       PumpB
|----| |---------|/|---------| |---------( )----

|   Level       PumpA       PumpB       Alarm
|----| |---------|/|---------|/|---------( )----

|   PumpA       PumpB       Both
|----| |---------| |---------( )----
