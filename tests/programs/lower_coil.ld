VAR
  A AT %IX0 : BOOL;
  B AT %IX1 : BOOL;
  Y AT %QX0 : BOOL;
  Seen : BOOL;
END_VAR

|   Seen          B           Y
|----| |---------|/|---------( )----

|     A         Seen
|----| |---------( )----
