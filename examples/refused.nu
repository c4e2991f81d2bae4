// A minus with a space before its number is a subtraction of two operands, and not a constant: refused 6 at token 3.
: i floor - 40
