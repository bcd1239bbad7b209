// Input transform: from the codes of a camera to light, in the primaries of the work.
ctlversion 1;
import "Curves";

// What the camera's red, green and blue give of those of the work, a row each. Grey stays grey.
const float CAMERA[3][3] = {
  { 0.75, 0.125, 0.0625 },
  { 0.1875, 0.8125, 0.1875 },
  { 0.0625, 0.0625, 0.75 }
};

void main(input varying float rIn, input varying float gIn, input varying float bIn,
          output varying float rOut, output varying float gOut, output varying float bOut)
{
  float camera[3] = { lin(rIn), lin(gIn), lin(bIn) };
  float work[3] = mult_f3_f33(camera, CAMERA);
  rOut = work[0];
  gOut = work[1];
  bOut = work[2];
}
