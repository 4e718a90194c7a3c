VAR
  Start AT %IX0 : BOOL;    (* push button, normally open *)
  Stop AT %IX1 : BOOL;     (* push button, normally closed: OFF when pressed *)
  OvlOk AT %IX2 : BOOL;    (* overload relay, normally closed: OFF when tripped *)
  Guard AT %IX3 : BOOL;    (* guard switch: ON when closed *)
  Motor AT %QX0 : BOOL;
  Trip AT %QX1 : BOOL;     (* lamp *)
  Danger : BOOL;           (* the motor is ON and a permit is OFF *)
END_VAR

(* The motor: start, seal-in, and three permits in series *)
|   Start       Stop        OvlOk       Guard       Motor
|----| |----+----| |---------| |---------| |---------( )----
|   Motor   |
|----| |----+

(* The lamp *)
|   OvlOk       Trip
|----|/|---------( )----

(* Detects what must never be *)
|   Motor       Stop       Danger
|----| |----+----|/|----+----( )----
|           |   OvlOk   |
|           +----|/|----+
|           |   Guard   |
|           +----|/|----+
