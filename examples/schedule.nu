// A day's schedule for one floor: setpoints by hour, lowered at night and raised again before the morning.
$ `stdlib/core/time` t

: i NIGHT_FROM 23
: i DAY_FROM 6
: ~ i overrides 0

& `libvalve` @ set_valve i room i tenths → b

@ setpoint i hour → i {
  ? | >= hour NIGHT_FROM < hour DAY_FROM { ^ 160 } { ^ 205 }
}

@ run_floor [ i rooms i hour → i {
  : target ( setpoint hour )
  : ~ i moved 0
  ~ room rooms {
    ? ( set_valve room target ) { = moved + moved 1 } { = overrides + overrides 1 }
  }
  ^ moved
}
