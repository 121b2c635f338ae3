SET SCALE 2 ROUNDING HALF_UP;
INPUT "shops" ("Town" TEXT, "Shop" INTEGER) KEY ("Shop");
INPUT "sales" ("Day" DATE, "Shop" INTEGER, "Amount" NUMBER) KEY ("Shop", "Day");
CREATE TABLE "towns" AS
  SELECT "p"."Town" AS "Town", COUNT("s"."Amount") AS "Days", AVG("s"."Amount") AS "Mean"
  FROM "shops" AS "p"
  LEFT JOIN "sales" AS "s" ON "s"."Shop" = "p"."Shop"
  GROUP BY "p"."Town";
EXPORT "towns" ORDER BY "Mean";
EXPORT "shops";
