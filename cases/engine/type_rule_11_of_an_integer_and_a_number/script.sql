SET SCALE 2 ROUNDING HALF_UP;
INPUT "T" ("id" INTEGER, "k" INTEGER) KEY ("id");
INPUT "X" ("id" INTEGER, "x" NUMBER) KEY ("id");
CREATE TABLE "U" AS
  SELECT "t"."k" AS "k"
  FROM "T" AS "t"
  GROUP BY "t"."k"
  HAVING EXISTS (SELECT 1 FROM "X" AS "x" WHERE "x"."x" = "t"."k");
EXPORT "U";
