SET SCALE 0 ROUNDING DOWN;
INPUT "T" ("id" INTEGER, "k" INTEGER) KEY ("id");
CREATE TABLE "A" AS
  SELECT "t"."k" AS "k"
  FROM "T" AS "t"
  WHERE "t"."k" > 0;
EXPORT "A";
CREATE TABLE "B$1" AS
  SELECT 10 / "t"."k" AS "k"
  FROM "T" AS "t";
