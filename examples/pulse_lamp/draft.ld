VAR
  Button AT %IX0 : BOOL;
  Permit AT %IX1 : BOOL;   (* key switch *)
  Lamp AT %QX0 : BOOL;
END_VAR

|  Button      Permit       Lamp        Lamp
|----|P|---------| |---------|/|---------(S)----

|  Button      Permit       Lamp        Lamp
|----|P|---------| |---------| |---------(R)----
