// A ball above a block, in centimetres.
SetFactory("OpenCASCADE");
Box(1) = {-8, -8, -2, 16, 16, 2};
Sphere(2) = {0, 0, 6, 5};
Physical Volume("block", 1) = {1};
Physical Volume("ball", 2) = {2};
MeshSize{ PointsOf{ Volume{1}; } } = 5;
MeshSize{ PointsOf{ Volume{2}; } } = 1.8;
Mesh.CharacteristicLengthExtendFromBoundary = 1;
Mesh.MshFileVersion = 2.2;
