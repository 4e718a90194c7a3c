VAR
  Safe AT %IX0 : BOOL;     (* emergency stop relay: ON when reset *)
  Auto AT %IX1 : BOOL;     (* selector: ON automatic, OFF by hand *)
  Start AT %IX2 : BOOL;
  Full AT %IX3 : BOOL;
  Empty AT %IX4 : BOOL;
  HandIn AT %IX5 : BOOL;   (* push button *)
  HandOut AT %IX6 : BOOL;  (* push button *)
  Inlet AT %QX0 : BOOL;    (* valve *)
  Mixer AT %QX1 : BOOL;
  Outlet AT %QX2 : BOOL;   (* valve *)
  Fill : BOOL;             (* step *)
  Mix : BOOL;              (* step *)
  Drain : BOOL;            (* step *)
  Through : BOOL;          (* detects that both valves are open *)
  Unsafe : BOOL;           (* detects an output that is ON without the relay *)
  MixTime : TON := (PT := T#10s);
END_VAR

|   Auto
|----|/|---------->>HAND

(* Steps: each sets the next one and resets itself *)
|   Start       Empty       Fill         Mix        Drain       Safe        Full        Fill
|----| |---------| |---------|/|---------|/|---------|/|---------| |---------|/|---------(S)----

|   Fill        Full         Mix        Fill
|----| |---------| |---------(S)---------(R)----

|    Mix       MixTime      Drain        Mix
|----| |------|IN TON Q|-----(S)---------(R)----

|   Drain       Empty       Drain
|----| |---------| |---------(R)----

(* Outputs of the steps *)
|   Fill        Safe        Inlet
|----| |---------| |---------( )----

|    Mix        Safe        Mixer
|----| |---------| |---------( )----

|   Drain       Safe       Outlet
|----| |---------| |---------( )----

|
|---->>CHECK

HAND:
|  HandIn      HandOut      Safe        Inlet
|----| |---------|/|---------| |---------( )----

|  HandOut     HandIn       Safe       Outlet
|----| |---------|/|---------| |---------( )----

(* By hand the sequence ends, and nothing mixes *)
|               Fill         Mix        Drain       Mixer
|----------------(R)---------(R)---------(R)---------(R)----

CHECK:
|   Inlet      Outlet      Through
|----| |---------| |---------( )----

|   Inlet       Safe       Unsafe
|----| |----+----|/|---------( )----
|   Mixer   |
|----| |----+
|  Outlet   |
|----| |----+
