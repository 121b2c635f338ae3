SET SCALE 2 ROUNDING HALF_UP;
INPUT "T" ("id" INTEGER, "k" INTEGER, "v" INTEGER) KEY ("id");
INPUT "S" ("id" INTEGER, "k" INTEGER, "w" TEXT) KEY ("id");
CREATE TABLE "U" AS
  SELECT "t"."id" AS "a", "s"."id" AS "b"
  FROM "T" AS "t"
  CROSS JOIN "S" AS "s"
  WHERE ("t"."k" = "s"."k" OR "t"."id" = 1) AND "s"."id" < 3;
EXPORT "U";
