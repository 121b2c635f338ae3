SET SCALE 0 ROUNDING DOWN;
INPUT "T" ("id" INTEGER, "k" INTEGER) KEY ("id");
CREATE TABLE "A" AS
  SELECT "t"."k" AS "k"
  FROM "T" AS "t"
  WHERE "t"."k" > 0;
