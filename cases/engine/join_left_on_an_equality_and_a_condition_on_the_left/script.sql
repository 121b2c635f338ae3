SET SCALE 2 ROUNDING HALF_UP;
INPUT "T" ("id" INTEGER, "k" INTEGER, "v" INTEGER) KEY ("id");
INPUT "S" ("id" INTEGER, "k" INTEGER, "w" TEXT) KEY ("id");
CREATE TABLE "U" AS
  SELECT "t"."id" AS "a", "s"."id" AS "b"
  FROM "T" AS "t"
  LEFT JOIN "S" AS "s" ON "t"."v" IS NULL AND "t"."k" = "s"."k";
EXPORT "U";
