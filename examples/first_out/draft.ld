VAR
  Pressure AT %IX0 : BOOL;  (* pressure too high *)
  Level AT %IX1 : BOOL;     (* level too low *)
  Heat AT %IX2 : BOOL;      (* bearing too hot *)
  Ack AT %IX3 : BOOL;       (* push button *)
  FirstP AT %QX0 : BOOL;    (* lamp: the pressure was first *)
  FirstL AT %QX1 : BOOL;    (* lamp: the level was first *)
  FirstH AT %QX2 : BOOL;    (* lamp: the bearing was first *)
  Trip AT %QX3 : BOOL;      (* stops the machine *)
  Unnamed : BOOL;           (* detects a trip without a lamp *)
  Twice : BOOL;             (* detects two lamps *)
END_VAR

(* A lamp is set where no other trip stands *)
| Pressure      Level       Heat       FirstP
|----| |---------|/|---------|/|---------(S)----

|   Level     Pressure      Heat       FirstL
|----| |---------|/|---------|/|---------(S)----

|   Heat      Pressure      Level      FirstH
|----| |---------|/|---------|/|---------(S)----

(* Ack, once all is well *)
|    Ack      Pressure      Level       Heat       FirstP
|----| |---------|/|---------|/|---------|/|----+----(R)----
|                                               |  FirstL
|                                               +----(R)----
|                                               |  FirstH
|                                               +----(R)----

| Pressure      Trip
|----| |----+----( )----
|   Level   |
|----| |----+
|   Heat    |
|----| |----+

|   Trip       FirstP      FirstL      FirstH      Unnamed
|----| |---------|/|---------|/|---------|/|---------( )----

|  FirstP      FirstL       Twice
|----| |---------| |----+----( )----
|  FirstP      FirstH   |
|----| |---------| |----+
|  FirstL      FirstH   |
|----| |---------| |----+
