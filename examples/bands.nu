// Temperature bands by kind of room, and whether a reading lies inside one.
: Band { i bottom i top }

: | Room { Bedroom Bathroom Corridor i Plant s }

@ band_of Room room → Band {
  ?? room {
    Bedroom → @ Band { 180 210 }
    Bathroom → @ Band { 200 240 }
    Corridor width → @ Band { -40 60 }
    _ → @ Band { 50 350 }
  }
}

@ inside Band band i reading → b {
  ^ & <= . band bottom reading <= reading . band top
}
