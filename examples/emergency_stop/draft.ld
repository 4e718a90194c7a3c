VAR
  EStop AT %IX0 : BOOL;    (* emergency stop circuit, ON while no button is pressed *)
  Reset AT %IX1 : BOOL;    (* push button *)
  Start AT %IX2 : BOOL;    (* push button *)
  Stop AT %IX3 : BOOL;     (* push button, OFF when pressed *)
  Enabled AT %QX0 : BOOL;  (* lamp: the emergency stop was reset *)
  Motor AT %QX1 : BOOL;
END_VAR

(* Reset acts while it is pressed *)
|   Reset       EStop      Enabled
|----| |----+----| |---------( )----
|  Enabled  |
|----| |----+

(* Start acts while it is pressed *)
|   Start       Stop       Enabled      Motor
|----| |----+----| |---------| |---------( )----
|   Motor   |
|----| |----+
