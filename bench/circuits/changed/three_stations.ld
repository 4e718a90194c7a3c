VAR
  EStop AT %IX0.0 : BOOL;
  Guard AT %IX0.1 : BOOL;
  Start AT %IX0.2 : BOOL;
  Stop AT %IX0.3 : BOOL;
  Auto AT %IX0.4 : BOOL;
  Manual AT %IX0.5 : BOOL;
  Clear AT %IX0.6 : BOOL;
  Air AT %IX0.7 : BOOL;
  Part1 AT %IX1.0 : BOOL;
  Done1 AT %IX1.1 : BOOL;
  Ovl1 AT %IX1.2 : BOOL;
  Req1 AT %IX1.3 : BOOL;
  Part2 AT %IX1.4 : BOOL;
  Done2 AT %IX1.5 : BOOL;
  Ovl2 AT %IX1.6 : BOOL;
  Req2 AT %IX1.7 : BOOL;
  Part3 AT %IX2.0 : BOOL;
  Done3 AT %IX2.1 : BOOL;
  Ovl3 AT %IX2.2 : BOOL;
  Req3 AT %IX2.3 : BOOL;
  Horn AT %QX0.0 : BOOL;
  Ready AT %QX0.1 : BOOL;
  Lamp AT %QX0.2 : BOOL;
  Feed AT %QX0.3 : BOOL;
  Run1 AT %QX0.4 : BOOL;
  Run2 AT %QX0.5 : BOOL;
  Run3 AT %QX0.6 : BOOL;
  Safe : BOOL;
  AutoOn : BOOL;
  Busy : BOOL;
  Fault : BOOL;
  Blink : BOOL;
  Arm1 : BOOL;
  Alarm1 : BOOL;
  Dn1 : BOOL;
  Full1 : BOOL;
  Ok1 : BOOL;
  Arm2 : BOOL;
  Alarm2 : BOOL;
  Dn2 : BOOL;
  Full2 : BOOL;
  Ok2 : BOOL;
  Arm3 : BOOL;
  Alarm3 : BOOL;
  Dn3 : BOOL;
  Full3 : BOOL;
  Ok3 : BOOL;
  X0 : BOOL;
  X1 : BOOL;
  X2 : BOOL;
  X3 : BOOL;
  X4 : BOOL;
  Tr1 : TON := (PT := T#250ms);
  Tl1 : TOF := (PT := T#2s);
  Cn1 : CTU := (PV := 6);
  Ls1 : SR;
  Tr2 : TON := (PT := T#300ms);
  Tl2 : TOF := (PT := T#2s);
  Cn2 : CTU := (PV := 7);
  Ls2 : SR;
  Tr3 : TON := (PT := T#350ms);
  Tl3 : TOF := (PT := T#2s);
  Cn3 : CTU := (PV := 8);
  Ls3 : SR;
  Tb : TON := (PT := T#500ms);
  Th : TP := (PT := T#3s);
END_VAR

|   EStop       Guard        Air         Stop        Safe
|----| |---------| |---------| |---------|/|---------( )

|   Start        Auto        Safe       Manual      AutoOn
|----| |---------| |----+----| |---------|/|---------( )
|   AutoOn              |
|----| |----------------+

|   AutoOn      Manual
|----|/|---------|/|----+->>IDLE
|    Safe               |
|----|/|----------------+

|   AutoOn      Part1        Ovl1       Done1        Run3        Safe        Arm1
|----| |---------| |---------|/|----+----|/|---------|/|---------| |---------(S)
|   Manual       Req1       Guard   |
|----| |---------| |---------| |----+

|   Done1        Arm1
|----| |----+----(R)
|    Ovl1   |
|----| |----+
|    Safe   |
|----|/|----+
|   Full1   |
|----| |----+

|    Arm1       Part1        Ovl1        Tr1         Ok1
|----| |---------| |---------|/|------|IN TON Q|-----( )

|    Ok1         Arm1                    Run2        Safe        Run1
|----| |---------| |----+----------------|/|---------| |---------( )
|   Manual       Req1   |
|----| |---------| |----+
|    Run1       Part1   |
|----| |---------| |----+

|   Done1        Arm1        Dn1
|----|P|---------| |----+----( )
|    Req1       Manual  |
|----|P|---------| |----+

|    Dn1         Safe        Cn1        Full1
|----| |---------| |------|CU CTU Q|-----( )
|   Clear       AutoOn
|----| |---------|/|------|R       |

|    Ovl1        Arm1        Ls1        Alarm1
|----| |---------| |------|S1 SR Q1|-----( )
|   Clear        Ovl1
|----| |---------|/|------|R       |

|    Run1        Tl1         Lamp
|----| |------|IN TOF Q|-----(S)

|   AutoOn      Part2        Ovl2       Done2        Run1        Safe        Arm2
|----| |---------| |---------|/|----+----|/|---------|/|---------| |---------(S)
|   Manual       Req2       Guard   |
|----| |---------| |---------| |----+

|   Done2        Arm2
|----| |----+----(R)
|    Ovl2   |
|----| |----+
|    Safe   |
|----|/|----+
|   Full2   |
|----| |----+

|    Arm2       Part2        Ovl2        Tr2         Ok2
|----| |---------| |---------|/|------|IN TON Q|-----( )

|    Ok2         Arm2        Ovl2        Run3        Safe        Run2
|----| |---------| |----+----|/|---------|/|---------| |---------( )
|   Manual       Req2   |
|----| |---------| |----+
|    Run2       Part2   |
|----| |---------| |----+

|   Done2        Arm2        Dn2
|----|P|---------| |----+----( )
|    Req2       Manual  |
|----|P|---------| |----+

|    Dn2         Safe        Cn2        Full2
|----| |---------| |------|CU CTU Q|-----( )
|   Clear       AutoOn
|----| |---------|/|------|R       |

|    Ovl2        Arm2        Ls2        Alarm2
|----| |---------| |------|S1 SR Q1|-----( )
|   Clear        Ovl2
|----| |---------|/|------|R       |

|    Run2        Tl2         Lamp
|----| |------|IN TOF Q|-----(S)

|   AutoOn      Part3        Ovl3       Done3        Run2        Safe        Arm3
|----| |---------| |---------|/|----+----|/|---------|/|---------| |---------(S)
|   Manual       Req3       Guard   |
|----| |---------| |---------| |----+

|   Done3        Arm3
|----| |----+----(R)
|    Ovl3   |
|----| |----+
|    Safe   |
|----|/|----+
|   Full3   |
|----| |----+

|    Arm3       Part3        Ovl3        Tr3         Ok3
|----| |---------| |---------|/|------|IN TON Q|-----( )

|    Ok3         Arm3        Ovl3        Run1        Safe        Run3
|----| |---------| |----+----|/|---------|/|---------| |---------( )
|   Manual       Req3   |
|----| |---------| |----+
|    Run3       Part3   |
|----| |---------| |----+

|   Done3        Arm3        Dn3
|----|P|---------| |----+----( )
|    Req3       Manual  |
|----|P|---------| |----+

|    Dn3         Safe        Cn3        Full3
|----| |---------| |------|CU CTU Q|-----( )
|   Clear       AutoOn
|----| |---------|/|------|R       |

|    Ovl3        Arm3        Ls3        Alarm3
|----| |---------| |------|S1 SR Q1|-----( )
|   Clear        Ovl3
|----| |---------|/|------|R       |

|    Run3        Tl3         Lamp
|----| |------|IN TOF Q|-----(S)

IDLE:
|   Alarm1      Clear       Fault
|----| |----+----|/|---------( )
|   Alarm2  |
|----| |----+
|   Alarm3  |
|----| |----+

|    Run1        Busy
|----| |----+----( )
|    Run2   |
|----| |----+
|    Run3   |
|----| |----+

|    Busy       Blink         Tb        Blink
|----| |---------|/|------|IN TON Q|-----( )

|   Fault       Clear                     Th         Horn
|----| |---------|/|----------------+-|IN TP  Q|-----( )
|    Horn        Stop       Clear   |
|----| |---------|/|---------|/|----+
|    Safe       AutoOn              |
|----|/|---------| |----------------+

|    Busy       Fault        Safe        Air        Full1       Full2       Full3       Ready
|----|/|---------|/|----+----| |---------| |---------|/|---------|/|---------|/|---------( )
|   Manual      Clear   |
|----| |---------| |----+

|    Req1        Safe        Run1       Done3         X0
|----|/|---------|/|---------|/|----+----| |---------( )
|   EStop        Busy        Run1   |
|----|/|---------| |---------| |----+
|   Manual       Req1        Air    |
|----| |---------| |---------| |----+

|    Air        Fault       Done2       Manual        X1
|----|/|---------| |---------| |---------| |---------( )

|    Busy        Auto        Req3       Clear         X2
|----| |---------| |---------|/|----+----|/|---------( )
|    Auto       EStop       Clear   |
|----| |---------| |---------| |----+
|   Manual      Done1       Clear   |
|----| |---------| |---------| |----+
|     X1         Run1       Manual  |
|----|/|---------|/|---------| |----+

|   EStop       Done2         X2         Ovl1         X3
|----| |---------| |---------| |----+----|/|---------( )
|   Part1        Ovl1        Safe   |
|----| |---------| |---------| |----+
|    Ovl3        Req3        Run3   |
|----|/|---------| |---------|/|----+
|   Start        Req1        Req2   |
|----| |---------| |---------| |----+

|    Req2       Manual      Part1       Ready         X4
|----| |---------|/|---------| |----+----|/|---------( )
|     X3         Req1       EStop   |
|----| |---------|/|---------| |----+

|   Ready       AutoOn       Horn       Guard        Feed
|----| |---------| |----+----|/|---------| |---------( )
|     X1         Safe   |
|----| |---------| |----+
|     X2         Safe   |
|----| |---------| |----+
|     X3         Safe   |
|----| |---------| |----+
|     X4         Safe   |
|----| |---------| |----+
|   Fault       Manual  |
|----| |---------| |----+
