VAR
  Clear AT %IX0 : BOOL;    (* light barrier, ON while nothing interrupts it *)
  MuteA AT %IX1 : BOOL;    (* muting sensor, ON when a pallet is there *)
  MuteB AT %IX2 : BOOL;    (* muting sensor, ON when a pallet is there *)
  Permit AT %QX0 : BOOL;   (* permits the palletizer *)
  Lamp AT %QX1 : BOOL;     (* muting lamp *)
  Muting : BOOL;
END_VAR

(* A pallet is at both sensors *)
|   MuteA       MuteB      Muting
|----| |---------| |---------( )----

|  Muting       Lamp
|----| |---------( )----

|   Clear      Permit
|----| |----+----( )----
|  Muting   |
|----| |----+
