SET SCALE 2 ROUNDING HALF_UP;
INPUT "T" ("id" INTEGER, "k" INTEGER, "v" INTEGER) KEY ("id");
INPUT "S" ("id" INTEGER, "k" INTEGER, "w" TEXT) KEY ("id");
CREATE TABLE "U" AS
  SELECT "t"."id" AS "a", "s"."id" AS "b"
  FROM "T" AS "t"
  INNER JOIN "S" AS "s" ON NOT "t"."id" = "s"."id" AND "s"."k" = "t"."k";
EXPORT "U";
