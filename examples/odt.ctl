// Output transform: from light to the codes of a display, with a soft shoulder.
ctlversion 1;

// What is shown of an amount of light: 21 pairs.
const float SHOWN[21][2] = {
  { 0.0, 0.0 }, { 0.01, 0.012 }, { 0.02, 0.024 }, { 0.03, 0.037 }, { 0.05, 0.061 }, { 0.075, 0.09 }, { 0.1, 0.12 },
  { 0.15, 0.177 }, { 0.2, 0.233 }, { 0.25, 0.288 }, { 0.3, 0.341 }, { 0.4, 0.442 }, { 0.5, 0.537 }, { 0.6, 0.626 },
  { 0.7, 0.709 }, { 0.8, 0.785 }, { 0.9, 0.853 }, { 1.0, 0.911 }, { 1.2, 0.966 }, { 1.5, 0.992 }, { 2.0, 1.0 }
};

void main(input varying float rIn, input varying float gIn, input varying float bIn, input varying float aIn = 1.0,
          input uniform float gamma = 2.4,
          output varying half rOut, output varying half gOut, output varying half bOut)
{
  float e = 1.0 / gamma;
  rOut = pow(interpolate1D(SHOWN, rIn), e) * aIn;
  gOut = pow(interpolate1D(SHOWN, gIn), e) * aIn;
  bOut = pow(interpolate1D(SHOWN, bIn), e) * aIn;
}
