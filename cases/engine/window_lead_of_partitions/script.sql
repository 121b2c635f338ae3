SET SCALE 2 ROUNDING HALF_UP;
INPUT "X" ("id" INTEGER, "g" TEXT, "k" INTEGER, "v" INTEGER, "n" NUMBER) KEY ("id");
CREATE TABLE "U" AS
  SELECT "x"."id" AS "id", LEAD("x"."v", 1, -9) OVER (PARTITION BY "x"."g" ORDER BY "x"."k") AS "i", LEAD("x"."n", 1, NULL) OVER (PARTITION BY "x"."g" ORDER BY "x"."k" DESC) AS "n"
  FROM "X" AS "x";
EXPORT "U";
