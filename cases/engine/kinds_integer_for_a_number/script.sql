SET SCALE 2 ROUNDING HALF_UP;
INPUT "T" ("id" INTEGER, "k" INTEGER, "v" INTEGER) KEY ("id");
CREATE TABLE "U" AS
  SELECT "t"."id" + 0.5 AS "a", COALESCE("t"."v", 0.25) AS "b", "t"."id" = 1.0 AS "c", BETWEEN("t"."id", 0.5, 1) AS "d", "t"."k" IN (20, 30) AS "e", MOD("t"."k", 7.5) AS "f"
  FROM "T" AS "t"
  WHERE "t"."id" < 3.5;
EXPORT "U";
