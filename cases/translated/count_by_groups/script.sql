SET SCALE 6 ROUNDING HALF_UP;
INPUT "x" ("k" TEXT, "j" INTEGER, "u" INTEGER) KEY ("k", "j");
CREATE TABLE "R" AS
  SELECT "a"."k" AS "k", COUNT(*) AS "int_var"
  FROM "x" AS "a"
  GROUP BY "a"."k";
EXPORT "R" ORDER BY "k";
