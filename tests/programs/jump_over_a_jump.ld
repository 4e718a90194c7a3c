VAR
  Skip AT %IX0 : BOOL;
  Hop AT %IX1 : BOOL;
  A AT %IX2 : BOOL;
  Y AT %QX0 : BOOL;
END_VAR

|   Skip
|----| |--------->>MID

|    Hop
|----| |--------->>DONE

MID:
|     A           Y
|----| |---------( )----

DONE:
|
