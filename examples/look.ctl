// A look: more contrast around the middle, a warmer balance, and less colour in what is nearly grey.
ctlversion 1;

const float WARM[3][3] = {
  { 1.0625, 0.0, 0.0 },
  { 0.0, 1.0, 0.0 },
  { 0.0, 0.0, 0.875 }
};

// A curve through 0, the middle and 1 that is steeper in the middle each time that it is gone through.
float contrast(float x, int times)
{
  float y = x;
  for (int i = 0; i < times; i = i + 1) y = y * y * (3.0 - 2.0 * y);
  return y;
}

float mixed(float a, float b, float share)
{
  return a + (b - a) * share;
}

void main(input varying float rIn, input varying float gIn, input varying float bIn,
          input uniform float strength = 0.5,
          output varying float rOut, output varying float gOut, output varying float bOut)
{
  float warm[3] = { rIn, gIn, bIn };
  float pixel[3] = mult_f3_f33(warm, WARM);
  float light = (pixel[0] + 2.0 * pixel[1] + pixel[2]) * 0.25;
  for (int c = 0; c < 3; c = c + 1) {
    float far = fabs(pixel[c] - light);
    if (far < 0.0625) pixel[c] = mixed(light, pixel[c], far * 16.0);
    pixel[c] = mixed(pixel[c], contrast(pixel[c], 2), strength);
  }
  rOut = pixel[0];
  gOut = pixel[1];
  bOut = pixel[2];
}
