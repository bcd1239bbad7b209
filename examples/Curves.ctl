// Curves that more than one transform needs.
ctlversion 1;

// The light of a code of a logarithmic curve: a code of 0.1 and below lies on a straight line.
float lin(float c)
{
  if (c < 0.1) return c * 0.1;
  return pow10((c - 1.0) * 2.0);
}
