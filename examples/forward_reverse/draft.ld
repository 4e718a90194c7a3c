VAR
  Fwd AT %IX0 : BOOL;      (* push button, normally open *)
  Rev AT %IX1 : BOOL;      (* push button, normally open *)
  Stop AT %IX2 : BOOL;     (* push button, normally closed: OFF when pressed *)
  OvlOk AT %IX3 : BOOL;    (* overload relay, normally closed *)
  Forward AT %QX0 : BOOL;  (* contactor *)
  Reverse AT %QX1 : BOOL;  (* contactor *)
  Both : BOOL;             (* detects that both contactors are ON *)
END_VAR

|    Fwd         Rev        Stop        OvlOk      Forward
|----| |---------|/|----+----| |---------| |---------( )----
|  Forward              |
|----| |----------------+

|    Rev         Fwd        Stop        OvlOk      Reverse
|----| |---------|/|----+----| |---------| |---------( )----
|  Reverse              |
|----| |----------------+

|  Forward     Reverse      Both
|----| |---------| |---------( )----
