VAR
  Empty AT %IX0 : BOOL;    (* float switch at the bottom: ON when the tank is empty *)
  High AT %IX1 : BOOL;     (* float switch: ON when the level is high *)
  Top AT %IX2 : BOOL;      (* float switch above it *)
  P1Ok AT %IX3 : BOOL;     (* overload relay of pump 1, normally closed *)
  P2Ok AT %IX4 : BOOL;     (* overload relay of pump 2, normally closed *)
  Pump1 AT %QX0 : BOOL;
  Pump2 AT %QX1 : BOOL;
  Alarm AT %QX2 : BOOL;
  Want : BOOL;             (* the tank is being emptied *)
  DryRun : BOOL;           (* detects that a pump is ON and the tank is empty *)
  Level : SR;
END_VAR

(* From high level to empty; set dominant *)
|   High        Level       Want
|----| |------|S1 SR Q1|-----( )----
|   Empty
|----| |------|R       |

(* Pump 1 leads *)
|   Want        P1Ok        Pump1
|----| |---------| |---------( )----

(* Pump 2 helps at the top, and stands in for pump 1 *)
|   Want         Top        P2Ok        Pump2
|----| |----+----| |----+----| |---------( )----
|           |   P1Ok    |
|           +----|/|----+

|   P1Ok        Alarm
|----|/|----+----( )----
|   P2Ok    |
|----|/|----+
|    Top    |
|----| |----+

|   Pump1       Empty      DryRun
|----| |----+----| |---------( )----
|   Pump2   |
|----| |----+
