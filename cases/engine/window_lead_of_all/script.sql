SET SCALE 2 ROUNDING HALF_UP;
INPUT "X" ("id" INTEGER, "g" TEXT, "k" INTEGER, "v" INTEGER, "n" NUMBER) KEY ("id");
CREATE TABLE "U" AS
  SELECT "x"."id" AS "id", LEAD("x"."v", 1, -9) OVER (ORDER BY "x"."k") AS "i", LEAD("x"."n", 2, 0.25) OVER (ORDER BY "x"."k") AS "n", LEAD("x"."g", 1, NULL) OVER (ORDER BY "x"."k") AS "g"
  FROM "X" AS "x";
EXPORT "U";
