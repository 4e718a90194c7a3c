VAR
  Button AT %IX0 : BOOL;
  Permit AT %IX1 : BOOL;   (* key switch *)
  Lamp AT %QX0 : BOOL;
  Pulse : BOOL;
END_VAR

(* ON for one scan when the button is pressed *)
|  Button      Permit       Pulse
|----|P|---------| |---------( )----

|   Pulse       Lamp        Lamp
|----| |---------|/|----+----( )----
|   Pulse       Lamp    |
|----|/|---------| |----+
