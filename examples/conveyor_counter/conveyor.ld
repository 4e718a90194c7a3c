VAR
  Run AT %IX0 : BOOL;      (* selector *)
  Part AT %IX1 : BOOL;     (* light barrier, ON when a part is in front of it *)
  Ack AT %IX2 : BOOL;      (* push button: the full box was taken away *)
  Jam AT %IX3 : BOOL;      (* limit switch behind the box *)
  Belt AT %QX0 : BOOL;
  BoxFull AT %QX1 : BOOL;  (* lamp *)
  Parts : CTU := (PV := 5);
END_VAR

|   Part        Parts      BoxFull
|----| |------|CU CTU Q|-----( )----
|    Ack
|----| |------|R       |

|    Run       BoxFull       Jam        Belt
|----| |---------|/|---------|/|---------( )----
