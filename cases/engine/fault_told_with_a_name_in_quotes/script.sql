SET SCALE 2 ROUNDING HALF_UP;
INPUT "T" ("id" INTEGER, "k" INTEGER, "v" INTEGER) KEY ("id");
CREATE TABLE "a ""b"", c" AS
  SELECT 1 / "t"."k" AS "x"
  FROM "T" AS "t";
