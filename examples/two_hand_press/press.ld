VAR
  Left AT %IX0 : BOOL;     (* palm button, ON when pressed *)
  Right AT %IX1 : BOOL;    (* palm button, ON when pressed *)
  Guard AT %IX2 : BOOL;    (* rear guard, ON when closed *)
  Press AT %QX0 : BOOL;    (* valve of the ram: ON moves it down *)
  Used : BOOL;             (* a stroke began since both buttons were released *)
  OneHand : BOOL;          (* detects a stroke with a button released *)
  Window : TOF := (PT := T#500ms);
END_VAR

(* ON while both are released, and 500 ms longer *)
|   Left        Right      Window
|----|/|---------|/|------|IN TOF Q|

(* Both buttons within the window; then until one is released *)
| Window.Q      Used        Left        Right       Guard       Press
|----| |---------|/|----+----| |---------| |---------| |---------( )----
|   Press               |
|----| |----------------+

(* One stroke only, until both are released *)
|   Press       Used
|----| |---------(S)----

|   Left        Right       Used
|----|/|---------|/|---------(R)----

|   Press       Left       OneHand
|----| |----+----|/|----+----( )----
|           |   Right   |
|           +----|/|----+
