// A band: its bottom is the one number -40, its top 60, in tenths of a degree.
@ corridor → v {
  [ i | -40 60 ]
}
