SET SCALE 6 ROUNDING HALF_UP;
INPUT "x" ("k" TEXT, "j" INTEGER, "u" INTEGER) KEY ("k", "j");
CREATE TABLE "R" AS
  SELECT "a"."k" AS "k", "a"."j" AS "j", "a"."u" AS "u",
    RANK() OVER (PARTITION BY "a"."k" ORDER BY "a"."u" DESC) AS "r"
  FROM "x" AS "a";
EXPORT "R" ORDER BY "k", "j";
