// The lowest temperature that a corridor may fall to, in tenths of a degree.
: i floor -40

// The coldest reading of a corridor against it.
@ too_cold i reading → b {
  ^ < reading floor
}
