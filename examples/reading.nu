// Readings that may be missing, a generic box for them, and a closure that counts the valid ones.
: Box [T] { ? T value i age }

% Sensor [T] {
  @ read T self → ! i s
  @ name T self → s { ^ `unnamed` }
}

: Thermostat { i address }

% Sensor Thermostat {
  @ read Thermostat self → ! i s {
    : raw ( poll . self address )
    ^ # i raw
  }
}

@ valid [ ( Box i ) boxes → i {
  : ~ i count 0
  : bump \ i by → i { = count + count by ^ count }
  ~ box boxes {
    ? < . box age 600 { ( bump 1 ) } { ( bump 0 ) }
  }
  ^ count
}
