SET SCALE 6 ROUNDING HALF_UP;
INPUT "x" ("k" TEXT, "j" INTEGER, "u" INTEGER) KEY ("k", "j");
CREATE TABLE "R" AS
  SELECT "a"."k" AS "k", "a"."j" AS "j",
    LAG("a"."u", 1, -1) OVER (ORDER BY "a"."j" DESC, "a"."k") AS "u"
  FROM "x" AS "a";
EXPORT "R" ORDER BY "k", "j";
