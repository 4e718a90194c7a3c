VAR
  Pulse AT %IX0 : BOOL;
  Y AT %QX0 : BOOL;
  Flip : BOOL;
  Count : CTU := (PV := 5);
END_VAR

|   Flip        Pulse        Flip
|----|/|---------| |---------( )----

|   Flip        Count         Y
|----| |------|CU CTU Q|-----( )----
|
|             |R       |
