SET SCALE 2 ROUNDING HALF_EVEN;
INPUT "X" ("id" INTEGER, "v" INTEGER) KEY ("id");
CREATE TABLE "U" AS
  SELECT AVG("x"."v") AS "a", AVG(-"x"."v") AS "b"
  FROM "X" AS "x";
EXPORT "U";
