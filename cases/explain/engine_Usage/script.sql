SET SCALE 6 ROUNDING HALF_UP;
INPUT "T" ("k" TEXT CODES ('a', 'it''s'), "i" INTEGER) KEY ("k");
CREATE TABLE "R" AS
  SELECT "t"."k" AS "k", 1 / "t"."i" AS "r"
  FROM "T" AS "t";
EXPORT "R";
